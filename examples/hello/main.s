; The program: its text is copied to RAM by the startup code, and its stack is cleared there, before ENTRY is reached.
        AREA    main, CODE, READONLY
        IMPORT  print
        ENTRY
        LDR     sp,=stack_top
        LDR     r0,=text
        BL      print
        SWI     0x11

        AREA    words, DATA, READWRITE
text    DCB     "hello",10,0

        AREA    stack, DATA, NOINIT
        SPACE   0x400
stack_top
        END
