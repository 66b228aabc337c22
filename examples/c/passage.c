// Fish passage, in C: opens the pass the wider the smaller the head, but never past its largest opening. Compare ../fish-passage.asm.
// limits 0000-00FF 0300-03FF

volatile __at(0x0010) unsigned char sea;     // level
volatile __at(0x0011) unsigned char basin;   // level
volatile __at(0x0018) unsigned char largest; // opening
volatile __at(0x0019) unsigned char opening; // of the pass
volatile __at(0x001A) unsigned char head;    // for the fish counter

unsigned char at_most(unsigned char wanted)
{
    return wanted > largest ? largest : wanted;
}

void passage(void)
{
    if (sea >= basin)
        head = sea - basin;
    else
        head = basin - sea;
    opening = at_most(~head);
}
