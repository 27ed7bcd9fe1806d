; A routine that runs in RAM, where words are read faster than from ROM: the startup code copied it there.
        AREA    fast, CODE, READONLY
        EXPORT  copy
; copies r2 bytes, a multiple of 4, from r1 to r0
copy    SUBS    r2,r2,#4
        MOVMI   pc,lr
        LDR     r3,[r1],#4
        STR     r3,[r0],#4
        B       copy
        END
