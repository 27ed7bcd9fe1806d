; What the processor finds at 0 after reset. The linker defines Boot$$Start in each scatter image: the code that copies FAST
; and DATA to RAM, clears the zero part, and goes to the entry.
        AREA    vectors, CODE, READONLY
        IMPORT  |Boot$$Start|
        B       |Boot$$Start|   ; reset
        B       .               ; undefined instruction
        B       .               ; software interrupt
        B       .               ; prefetch abort
        B       .               ; data abort
        END
