; What GET takes into main.s: a structure, and macros. GET names a file as the command's words do, so by its path from
; the folder in which the command runs.

; The fields of a task, by the storage map: ^ sets it, and each # gives a name the map's value and adds so many bytes.
        ^       0
task_name #     4               ; the address of its name
task_turns #    1               ; how many turns it has
task_mark #     1               ; the character that stands for a turn
        ASSERT  @ <= 8
task_size EQU   8

; $label TASK name,turns,mark: one task. A default takes the place of an argument that is a lone bar.
        MACRO
$label  TASK    $name,$turns=1,$mark='.'
        LCLS    text
text    SETS    "$name"
$label  DCD     name_$name
        DCB     $turns,$mark
        ALIGN
names   SETS    names :CC: " " :CC: text
        MEND

; Prints the string at a label, or the byte in r0 where none is told.
        MACRO
$label  PRINT   $text
        IF      "$text" = ""
$label  SWI     0x00
        ELSE
$label  LDR     r0,=$text
        SWI     0x02
        ENDIF
        MEND
        END
