; Copies a text to a buffer that is too short for it, and so over the word behind: the address of the serial port.
        AREA    main, CODE, READONLY
        ENTRY
        LDR     r0,=buffer
        ADR     r1,text
copy    LDRB    r2,[r1],#1
        STRB    r2,[r0],#1
        CMP     r2,#0
        BNE     copy
        LDR     r0,=port
        LDR     r0,[r0]
        MOV     r2,#'.'
        STR     r2,[r0]
        SWI     0x11
text    DCB     "good evening",0
        ALIGN

        AREA    words, DATA, READWRITE
        EXPORT  buffer
        EXPORT  port
buffer  SPACE   8
port    DCD     0xF0000100
        END
