"""Register numbers and the bits of the registers."""

STAT = 0  # enabling, the buffers' state, which event sets the interrupt flag
CON1 = 1  # width, clock mode, role, prescalers
CON2 = 2  # frames, the buffers' depth
BUF = 3  # the data register

STAT_SPIEN = 0x8000  # enabled
STAT_SPISIDL = 0x2000  # kept, without effect
STAT_SPIBEC = 0x0700  # host: waiting; client: unread; more than 7 show as 7
STAT_SRMPT = 0x0080  # the shift register is empty
STAT_SPIROV = 0x0040  # a received word was lost; a 0 that is written clears it
STAT_SRXMPT = 0x0020  # the receive buffer is empty
STAT_SISEL = 0x001C  # which event sets the flag
STAT_SPITBF = 0x0002  # the transmit buffer is full
STAT_SPIRBF = 0x0001  # the receive buffer is full

CON1_DISSCK = 0x1000  # a host is clocked from its pin
CON1_DISSDO = 0x0800  # SDO is not driven
CON1_MODE16 = 0x0400  # words of 16 bits, else of 8
CON1_SMP = 0x0200  # not modelled: cannot be enabled
CON1_CKE = 0x0100  # SDO changes on the way to idle
CON1_SSEN = 0x0080  # a client heeds SS as its select
CON1_CKP = 0x0040  # the clock idles high
CON1_MSTEN = 0x0020  # host, else client
CON1_SPRE = 0x001C  # secondary prescaler, 8 - SPRE
CON1_PPRE = 0x0003  # primary prescaler: 64, 16, 4, 1

CON2_FRMEN = 0x8000  # framed: pulses at SS begin the words
CON2_SPIFSD = 0x4000  # frame client, else frame host
CON2_FRMPOL = 0x2000  # a pulse is high, else low
CON2_FRMDLY = 0x0002  # with the first bit, else before it
CON2_SPIBEN = 0x0001  # enhanced: the depth's words, else 1

# where the fields of more than one bit begin
STAT_SPIBEC_SHIFT = 8
STAT_SISEL_SHIFT = 2
CON1_SPRE_SHIFT = 2
CON1_PPRE_SHIFT = 0
