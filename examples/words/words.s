        AREA    words, CODE, READONLY   ; each statement takes up one word
        ENTRY
        ADD     r0,pc,#4        ; the text: pc is two words further on
        SWI     0x02            ; prints it
        SWI     0x11            ; ends
text    DCD     0x64726F77      ; w, o, r, d
        DCD     0x0A73          ; s, a line feed, and the end
        END
