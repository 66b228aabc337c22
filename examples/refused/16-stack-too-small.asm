; Refused 16 at 0: fish passage needs 5 stack bytes, and 03FC-03FF has 4.
; limits 0000-00FF 03FC-03FF
; version 1

        .area   CODE
_at_most::
        cp      a, 0x18
        jrule   enough
        ld      a, 0x18
enough: ret
_passage::
        ld      a, 0x10
        sub     a, 0x11
        jrnc    head
        neg     a
head:   push    a
        cpl     a
        call    _at_most
        ld      0x19, a
        pop     a
        ld      0x1A, a
        ret
