; The ARM half: enters the Thumb half by BL, and is called back from it. Each BL goes to code of the other state, so the
; linker puts a veneer into the region for it; the veneer's target must lie in an area with INTERWORK.
        AREA    main, CODE, READONLY, INTERWORK
        IMPORT  countdown
        EXPORT  digit
        ENTRY
        MOV     sp,#0x10000     ; below this is memory for a stack
        MOV     r0,#9
        BL      countdown       ; to Thumb code, by a veneer: LDR r12,[pc] and BX r12
        MOV     r0,#10
        SWI     0x00
        SWI     0x11

; Prints r0, from 0 to 9, as a digit. BX returns to the caller's state, which bit 0 of lr tells.
digit   ADD     r0,r0,#'0'
        SWI     0x00
        BX      lr
        END
