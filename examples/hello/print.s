; Prints the string at r0. It stands in a library.
        AREA    printer, CODE, READONLY
        EXPORT  print
print   STMFD   sp!,{lr}
        SWI     0x02
        LDMFD   sp!,{pc}
        END
