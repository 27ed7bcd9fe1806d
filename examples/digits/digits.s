; Prints a string by SWI 0x02 and ten digits by SWI 0x00: a loop over a local label, and a label by ADR.
; Its object has no relocations, so that its words are the image at any address:
; armsdt run -bin digits.bin -at 0x8000
        AREA    digits, CODE, READONLY
        ENTRY
        ADR     r0,text
        SWI     0x02
        MOV     r4,#'0'
1       MOV     r0,r4
        SWI     0x00
        ADD     r4,r4,#1
        CMP     r4,#'9'+1
        BNE     %B1
        MOV     r0,#10          ; a line feed
        SWI     0x00
        SWI     0x11
text    DCB     "digits: ",0
        ALIGN
        END
