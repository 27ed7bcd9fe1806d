; Calls a routine of another object: BL to an imported name, which the linker is to settle.
        AREA    main, CODE, READONLY
        IMPORT  print
        ENTRY
        ADR     r0,text
        BL      print
        SWI     0x11
        NOP
text    DCB     "hello",0
        ALIGN
        END
