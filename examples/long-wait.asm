; Long wait: opens the sluice, waits by calls within calls, and shuts it. It has no loop and ends, but its turn, 32,222,222,223 steps, is
; above what a budget can be.
; The stack has room for eleven return addresses.
; limits 0000-00FF 03EA-03FF
; version 2

outputs = 0x13          ; bit 0 is "open"

        .macro  ten_times wait
        call    wait
        call    wait
        call    wait
        call    wait
        call    wait
        call    wait
        call    wait
        call    wait
        call    wait
        call    wait
        .endm

        .area   CODE

; a turn of 2 steps; each wait after it has ten times the turn of the one before it, and 11 for the calls and its return
_wait_0::
        nop
        ret
_wait_1::
        ten_times _wait_0
        ret
_wait_2::
        ten_times _wait_1
        ret
_wait_3::
        ten_times _wait_2
        ret
_wait_4::
        ten_times _wait_3
        ret
_wait_5::
        ten_times _wait_4
        ret
_wait_6::
        ten_times _wait_5
        ret
_wait_7::
        ten_times _wait_6
        ret
_wait_8::
        ten_times _wait_7
        ret
_wait_9::
        ten_times _wait_8
        ret

; main
_long_wait::
        bset    outputs, #0
        ten_times _wait_9
        bres    outputs, #0
        ret
