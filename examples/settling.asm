; Settling: tells whether the basin is at rest: no level read since the sluice moved is further from the present one than a ripple.
; limits 0000-00FF 03FE-03FF
; version 1

basin   = 0x11          ; basin level
outputs = 0x13          ; bit 2 is "at rest"
ripple  = 0x16          ; largest ripple
number  = 0x17          ; number of levels read
levels  = 0x28          ; those levels, eight at most

        .area   CODE
_settling::
        bres    outputs, #2     ; not at rest
        clrw    x
        ld      a, number
        ld      xl, a           ; the levels that are left
        jra     test            ; to the test first, for there may be none
body:   ld      a, (levels-1,x) ; which only the jump below goes to
        sub     a, basin
        jrnc    away
        neg     a               ; the distance, whichever is higher
away:   cp      a, ripple
        jrugt   end             ; more than a ripple
        decw    x
test:   cpw     x, #0x0000
        jrne    body
        bset    outputs, #2     ; at rest
end:    ret
