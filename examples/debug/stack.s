; Counts down by a subroutine that saves registers on the stack, but nothing has set the stack pointer, which is 0 after reset.
        AREA    stack, CODE, READONLY
        ENTRY
        MOV     r4,#3
next    BL      show
        SUBS    r4,r4,#1
        BNE     next
        SWI     0x11
show    STMFD   sp!,{r0,lr}
        ADD     r0,r4,#'0'
        SWI     0x00
        LDMFD   sp!,{r0,pc}
        END
