; Changes its data, and then sets it up again from ROM, as a program does that starts anew without a reset. Where regions are
; and how long they are the linker tells by symbols:
;     Load$$R$$Base        where the region R is loaded, here in ROM
;     Image$$R$$Base       where it runs
;     Image$$R$$Length     its bytes without the zero part
;     Image$$R$$ZI$$Base, Image$$R$$ZI$$Length     its zero part
; A dollar in a name stands between bars.
        AREA    main, CODE, READONLY
        IMPORT  copy
        IMPORT  |Load$$DATA$$Base|
        IMPORT  |Image$$DATA$$Base|
        IMPORT  |Image$$DATA$$Length|
        IMPORT  |Image$$DATA$$ZI$$Base|
        IMPORT  |Image$$DATA$$ZI$$Length|
        ENTRY
        LDR     sp,=stack_top
        BL      show            ; as the startup code left it
        LDR     r1,=text
        MOV     r0,#'c'
        STRB    r0,[r1]
        BL      show            ; changed
        LDR     r0,=|Image$$DATA$$Base|
        LDR     r1,=|Load$$DATA$$Base|
        LDR     r2,=|Image$$DATA$$Length|
        BL      copy            ; which runs in RAM
        BL      show            ; as it is in ROM
        LDR     r0,=|Image$$DATA$$ZI$$Base|
        LDR     r1,=|Image$$DATA$$ZI$$Length|
        ADD     r0,r0,r1        ; the end of all data
        LDR     r1,=stack_top
        CMP     r0,r1           ; the stack is the last area of the zero part
        LDREQ   r0,=good
        SWIEQ   0x02
        SWI     0x11

show    LDR     r0,=text
        SWI     0x02
        MOV     pc,lr

good    DCB     "stack at the end",10,0

        AREA    words, DATA, READWRITE
text    DCB     "warm",10,0

        AREA    stack, DATA, NOINIT
        SPACE   0x100
stack_top
        END
