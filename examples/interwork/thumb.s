; The Thumb half: counts from r0 down to 0 and has each number printed by ARM code.
        AREA    counting, CODE, READONLY, INTERWORK
        CODE16
        IMPORT  digit
        EXPORT  countdown
countdown
        PUSH    {r4,lr}
        MOV     r4,r0
1       MOV     r0,r4
        BL      digit           ; to ARM code, by a veneer: BX pc, NOP and B digit
        SUB     r4,#1
        BPL     %B1
        POP     {r4}
        POP     {r3}            ; POP of pc would stay in Thumb state
        BX      r3
        END
