; Slack water: tells whether sea and basin stand still, each within a ripple of its smoothed level. A lesson stops three calls deep, in the
; subtraction, and goes on from there another day: each caller keeps something on the stack.
; The stack has room for four return addresses and the four bytes that callers keep.
; limits 0000-00FF 03F4-03FF
; version 2

sea      = 0x10         ; sea level
basin    = 0x11         ; basin level
outputs  = 0x13         ; bit 3 is "slack water"
ripple   = 0x16         ; largest ripple
smoothed = 0x1D         ; smoothed levels of sea and basin
still    = 0x1F         ; how many of the two stand still

        .area   CODE

; how far A is from the byte that X points at, whichever is higher, in A
_distance::
        sub     a, (x)
        jrnc    away
        neg     a
away:   ret

; whether A is within a ripple of the byte that X points at: neither C nor Z is set where it is further. A stays
_near::
        push    a               ; the level
        call    _distance
        cp      a, ripple
        pop     a               ; which leaves the flags
        ret

; counts the level in A if it is near the byte that X points at, and X goes on to the next byte
_tally::
        pushw   x               ; where the smoothed level is
        call    _near
        popw    x
        jrugt   moving
        inc     still
moving: incw    x
        ret

; main
_slack_water::
        clr     still
        ldw     x, #smoothed
        ld      a, basin
        push    a               ; the basin's turn comes second
        ld      a, sea
        call    _tally
        pop     a
        call    _tally
        bres    outputs, #3     ; not slack
        ld      a, still
        cp      a, #0x02
        jrne    end
        bset    outputs, #3     ; slack
end:    ret
