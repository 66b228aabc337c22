; Smoothing: takes the waves out of the levels of sea and basin: each smoothed level becomes its mean with the level just read.
; The stack has room for two return addresses. Version 0002: routines are called by CALL alone.
; limits 0000-00FF 03FC-03FF
; version 2

sea     = 0x10          ; sea level
basin   = 0x11          ; basin level
sea_smoothed   = 0x1D
basin_smoothed = 0x1E

        .area   CODE

; the mean of A and the byte that X points at, in A
_mean::
        add     a, (x)
        rrc     a               ; half the sum, whose ninth bit is the carry
        ret

; main
_smoothing::
        ldw     x, #sea_smoothed
        ld      a, sea
        call    _mean
        ld      sea_smoothed, a
        incw    x
        ld      a, basin
        call    _mean
        ld      basin_smoothed, a
        ret
