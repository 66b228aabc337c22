; Trim: sets the fish pass's trim, kept in data EEPROM, one step wider or narrower by what the gate reports, and trims the opening.
; The second grant is the EEPROM.
; limits 0000-00FF 0300-03FF 4000-401F
; version 1

asked    = 0x19         ; opening asked for
reported = 0x1B         ; opening reported
opening  = 0x1C         ; opening to drive to
trim     = 0x4000       ; in EEPROM
changes  = 0x4002       ; in EEPROM, two bytes: number of the trim's changes

        .area   CODE
_trim::
        ld      a, asked
        cp      a, reported
        jreq    done            ; as asked for: no store, for each wears the EEPROM
        jrc     narrow          ; too wide
        inc     trim            ; one step wider
        jra     count
narrow: dec     trim            ; one step narrower
count:  ldw     x, changes
        incw    x
        ldw     changes, x      ; one more change: both bytes lie in the second grant
done:   add     a, trim         ; the opening asked for, trimmed
        ld      opening, a
        ret
