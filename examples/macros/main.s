; A table that WHILE makes, a structure by ^ and #, conditional assembly, and macros from a file that GET takes.
        GBLS    names           ; all tasks so far, for the title
        GBLL    titled          ; whether a title is printed
        GBLA    k
titled  SETL    {TRUE}
        GET     defs.s

        AREA    main, CODE, READONLY
        ENTRY
        IF      titled
        PRINT   title
        ENDIF
        LDR     r4,=tasks
        MOV     r5,#(tasks_end - tasks) / task_size
next    LDR     r0,[r4,#task_name]
        SWI     0x02
        MOV     r0,#' '
        PRINT
        LDRB    r6,[r4,#task_turns]
        LDR     r1,=squares
        LDRB    r6,[r1,r6]      ; a task with n turns gets n * n marks
turn    LDRB    r0,[r4,#task_mark]
        PRINT
        SUBS    r6,r6,#1
        BNE     turn
        MOV     r0,#10
        PRINT
        ADD     r4,r4,#task_size
        SUBS    r5,r5,#1
        BNE     next
        SWI     0x11

        AREA    table, DATA, READONLY
tasks   TASK    idle,|,|
        TASK    blink,2,|
        TASK    sound,3,'*'
tasks_end

name_idle  DCB  "idle",0
name_blink DCB  "blink",0
name_sound DCB  "sound",0
        ALIGN

; 0, 1, 4 .. 81. A variable stands for its value by itself in WHILE and SETA; elsewhere it is put in as text by $, a
; number as eight hexadecimal digits, so 0x stands before it.
squares
k       SETA    0
        WHILE   k < 10
        DCB     0x$k * 0x$k
k       SETA    k + 1
        WEND

        IF      titled
title   DCB     "tasks:$names",10,0
        ENDIF
        END
