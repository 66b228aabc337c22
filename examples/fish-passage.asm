; Fish passage: opens the pass the wider the smaller the head, whichever side stands higher, but never past its largest opening.
; The stack has room for two return addresses and the head that main keeps.
; limits 0000-00FF 03FB-03FF
; version 1

sea     = 0x10          ; sea level
basin   = 0x11          ; basin level
largest = 0x18          ; largest opening
opening = 0x19          ; opening of the pass
counter = 0x1A          ; head for the fish counter

        .area   CODE

; A, or the largest opening where A is above it
_at_most::
        cp      a, largest
        jrule   enough
        ld      a, largest
enough: ret

; main
_passage::
        ld      a, sea
        sub     a, basin
        jrnc    head
        neg     a               ; the head, whichever side stands higher
head:   push    a
        cpl     a
        call    _at_most
        ld      opening, a
        pop     a
        ld      counter, a
        ret
