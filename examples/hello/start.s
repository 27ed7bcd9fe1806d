; What a machine finds at address 0 after reset: a branch to the startup code, which sets the image up in memory and then
; branches to the program's entry. The linker defines Boot$$Start. The description puts this area first in ROM.
        AREA    vectors, CODE, READONLY
        IMPORT  |Boot$$Start|
        B       |Boot$$Start|   ; reset
        B       .               ; undefined instruction
        END
