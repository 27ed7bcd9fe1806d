; Prints a text, and then hangs at a vector: its last instruction is SWI 0x10, which nobody handles, in the place of SWI 0x11.
        AREA    loop, CODE, READONLY
        ENTRY
        B       start           ; 0x00 reset
        B       .               ; 0x04 undefined instruction
        B       .               ; 0x08 software interrupt
        B       .               ; 0x0C prefetch abort
        B       .               ; 0x10 data abort
        B       .               ; 0x14 not used
        B       .               ; 0x18 IRQ
        B       .               ; 0x1C FIQ
start   ADR     r0,text
        SWI     0x02
        SWI     0x10
text    DCB     "hello",10,0
        ALIGN
        END
