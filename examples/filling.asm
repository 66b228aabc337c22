; Filling: opens the sluice while the sea stands high enough above the basin.
; The stack has room for main's return address and nothing else.
; limits 0000-00FF 03FE-03FF
; version 1

sea     = 0x10          ; sea level
basin   = 0x11          ; basin level
least   = 0x12          ; least head
outputs = 0x13          ; bit 0 is the sluice

        .area   CODE
_filling::
        ld      a, sea
        sub     a, basin        ; the head
        jrc     shut            ; the basin stands higher
        cp      a, least
        jrc     shut            ; too little head
        bset    outputs, #0     ; open
        ret
shut:   bres    outputs, #0
        ret
