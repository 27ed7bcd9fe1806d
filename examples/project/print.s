; The routine that main.s calls: prints the string at r0. It stands in a library.
        AREA    print, CODE, READONLY
        EXPORT  print
print   SWI     0x02
        MOV     pc,lr
        END
