; Counts the words of a table and prints as many stars.
        AREA    main, CODE, READONLY
        IMPORT  print
        EXPORT  start
        ENTRY
start   LDR     sp,=stack_top
        LDR     r0,=table
        MOV     r1,#(table_end - table) / 4
        LDR     r2,=stars
        MOV     r3,#'*'
1       STRB    r3,[r2],#1
        SUBS    r1,r1,#1
        BNE     %B1
        STRB    r1,[r2]
        LDR     r0,=stars
        BL      print
        SWI     0x11
        LTORG

        AREA    words, DATA, READWRITE
table   DCD     start, table, 0x12345678, :NOT: 0
table_end
stars   SPACE   table_end - table
        DCB     "behind the stars",0

        AREA    stack, DATA, NOINIT, ALIGN=3
        SPACE   0x100
stack_top
        END
