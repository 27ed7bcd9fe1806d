; Waits for three interrupts of the timer at 0xF0000000, then sends their number to the serial port at 0xF0000100, and
; prints what the port holds: the byte and how many bytes were sent. The image begins with the exception vectors, so it
; is loaded and entered at 0:
; armsdt run -bin timer.bin -at 0
timer   EQU     0xF0000000
period  EQU     0               ; registers of the timer
running EQU     4
clear   EQU     0xC
port    EQU     0x100           ; the serial port, behind the timer
sent    EQU     4               ; how many bytes were sent

        AREA    vectors, CODE, READONLY
        ENTRY
        B       start           ; reset
        B       .               ; undefined instruction
        B       .               ; software interrupt
        B       .               ; prefetch abort
        B       .               ; data abort
        B       .
        B       irq             ; interrupt
        B       .               ; fast interrupt

count   RN      4
start   MOV     count,#0
        MOV     r1,#timer
        MOV     r0,#100
        STR     r0,[r1,#period]
        MOV     r0,#1
        STR     r0,[r1,#running]
        MRS     r0,CPSR
        BIC     r0,r0,#0x80
        MSR     CPSR_c,r0       ; interrupts may come
wait    CMP     count,#3
        BNE     wait
        MOV     r0,#0
        STR     r0,[r1,#running]
        ADD     r2,r1,#port
        ADD     r0,count,#'0'
        STR     r0,[r2]         ; a byte is sent
        LDR     r0,[r2]         ; the last byte
        SWI     0x00
        LDR     r0,[r2,#sent]
        ADD     r0,r0,#'0'
        SWI     0x00
        MOV     r0,#10          ; a line feed
        SWI     0x00
        SWI     0x11

irq     MOV     sp,#timer       ; sp of this mode is free for it
        STR     sp,[sp,#clear]  ; the timer's line goes down
        ADD     count,count,#1
        SUBS    pc,lr,#4        ; back, with the old status
        END
