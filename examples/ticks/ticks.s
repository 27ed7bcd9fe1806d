; Prints a text byte by byte while the timer interrupts it every 50 steps, and then how many interrupts there were. The
; object of the interrupt kit takes them (armsdt irqkit), so that there are neither vectors nor a handler here. What the kit
; asks of a program, docs/manual/interrupts.md tells.
timer   EQU     0xF0000000
period  EQU     0               ; registers of the timer
running EQU     4

        AREA    main, CODE, READONLY
        IMPORT  irq_count
        ENTRY
        MOV     r1,#timer
        MOV     r0,#50
        STR     r0,[r1,#period]
        MOV     r0,#1
        STR     r0,[r1,#running]
        MOV     r0,#0x13
        MSR     CPSR_c,r0       ; interrupts may come
        ADR     r4,text
next    LDRB    r0,[r4],#1
        CMP     r0,#0
        SWINE   0x00
        BNE     next
        MOV     r0,#0x93
        MSR     CPSR_c,r0       ; no more
        LDR     r1,=irq_count
        LDR     r0,[r1]
        ADD     r0,r0,#'0'
        SWI     0x00
        MOV     r0,#10          ; a line feed
        SWI     0x00
        SWI     0x11
text    DCB     "ticks while this was printed: ",0
        ALIGN
        END
