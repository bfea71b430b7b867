"""The messages that a node is judged by: each has a name, octets and what it is about. What is due for it bsc check says.

In the octets #### is a Message ID, P the VMAC of a peer, O the node's own, B the broadcast, X another node's; AA*MAX-10 are as many
octets as the node takes in all, but for ten. `or CODE` names codes of other checks that the message fails too."""

# From its hub, while the node is connected.
CONNECTED = """
reserved-80 | 0A80 #### | a Heartbeat-Request with bit 7 of its flags
reserved-40 | 0A40 #### | one with bit 6
reserved-20 | 0A20 #### | one with bit 5
reserved-10 | 0A10 #### | one with bit 4
reserved-of-a-peer | 0118 #### P 0100 | an NPDU of a peer with a reserved flag: the NAK goes to that peer
reserved-to-all | 011C #### P B 0100 | a broadcast with a reserved flag
reserved-in-a-response | 0B80 #### | a Heartbeat-ACK with a reserved flag
unknown-0d | 0D08 #### P | the function 0D
unknown-ff | FF08 #### P AABB | the function FF
unknown-to-all | 0D0C #### P B | the function 0D, to all
cut-marker | 0A02 #### | options are announced, and there is none
cut-length | 0A02 #### 22 00 | the length of an option is cut
cut-data | 0A02 #### 22 0003 AABB | the data of an option are cut
cut-next | 0A02 #### C1 | another option is announced, and there is none
cut-data-options | 0109 #### P 3F 0004 FFFF | the data of a data option are cut
cut-second-list | 010B #### P 41 | data options are announced, and there is none
cut-in-an-ack | 0302 #### | an Address-Resolution-ACK whose options are cut
type-0 | 0A02 #### 00 | an option of type 0
secure-path-with-data | 0A02 #### 61 0000 | Secure Path with data
proprietary-without-data | 010A #### P 5F 0100 | a proprietary option without data
proprietary-short | 0A02 #### 3F 0002 00FF | a proprietary option without room for vendor and type
data-options-misplaced | 0801 #### 41 | data options in a Disconnect-Request
data-options-in-resolution | 0209 #### P 41 | data options in an Address-Resolution
not-understood | 010A #### P 42 0100 | an option of type 2 that has to be understood
not-understood-second | 0A02 #### C1 C2 43 | the second option is the one at fault
not-understood-with-data | 0A02 #### 62 0002 AABB | one with data
not-understood-to-all | 010E #### P B 42 0100 | the same in a broadcast
understood-secure-path | 0A02 #### 41 | Secure Path is understood: no NAK
not-required | 010A #### P 02 0100 | an option that nobody knows and nobody has to understand: no NAK
proprietary-option | 010A #### P 3F 0003 015A01 0100 | a proprietary option that nobody has to understand: no NAK
data-option | 0109 #### P 42 0120FFFF00FF1008 | a data option is no business of the node: no NAK
no-npdu | 0108 #### P | an Encapsulated-NPDU without an NPDU
no-npdu-to-all | 010C #### P B | the same to all
no-advertisement | 0408 #### P | an Advertisement without payload
no-proprietary | 0C08 #### P | a Proprietary-Message without payload
short-advertisement | 0408 #### P 01 00 0640 05 | an Advertisement of five octets
short-proprietary | 0C08 #### P 0104 | a Proprietary-Message of two octets
short-result | 0008 #### P 01 | a BVLC-Result of one octet
short-nak | 0008 #### P 01 01 00 0007 00 | a NAK of six octets
short-accept | 0700 #### O | a Connect-Accept of six octets
long-heartbeat | 0A00 #### AA | a Heartbeat-Request with a payload
long-disconnect | 0800 #### AA | a Disconnect-Request with a payload
long-resolution | 0208 #### P AA | an Address-Resolution with a payload
long-solicitation | 0508 #### P AA | an Advertisement-Solicitation with a payload
long-advertisement | 0408 #### P 01 00 0640 05D9 AA | an Advertisement of seven octets
long-heartbeat-ack | 0B00 #### AA | a Heartbeat-ACK with a payload
long-ack | 0008 #### P 01 00 AA | an ACK of three octets
range-status | 0408 #### P 03 00 0640 05D9 | hub status 3
range-accepts | 0408 #### P 01 02 0640 05D9 | accepts direct connections: 2
range-result | 0008 #### P 01 02 | the result code 2
range-uris | 0308 #### P C3 28 | URIs that are no UTF-8
range-details | 0008 #### P 01 01 00 0007 0091 FF | details that are no UTF-8
proprietary | 0C08 #### P 0104 05 AA | a Proprietary-Message of a vendor
proprietary-to-all | 0C0C #### P B 0104 05 AA | the same to all
few-octets | 0A00 41 | three octets
no-octets | | none
cut-origin | 0108 #### 0200000000 | the Originating address is cut
no-origin | 0100 #### 0100 | an NPDU without an Originating address
for-another | 010C #### P X 0100 | an NPDU for another node
for-itself | 010C #### P O 0100 | an NPDU with the node's own VMAC as Destination: no NAK
too-long | 0108 #### P AA*MAX-9 | one octet more than the node takes
longest | 0108 #### P AA*MAX-10 | as long as the node takes: no NAK
npdu | 0108 #### P 0120FFFF00FF1008 | an NPDU: no NAK
npdu-to-all | 010C #### P B 0120FFFF00FF1008 | a broadcast NPDU: no NAK
advertisement | 0408 #### P 01 00 0640 05D9 | an Advertisement: no answer
result | 0008 #### P 01 00 | an ACK that nobody asked for: no answer
nak | 0008 #### P 01 01 00 0007 0091 | a NAK that nobody asked for: no answer
resolution-ack | 0308 #### P 77733A2F2F782F | an Address-Resolution-ACK that nobody asked for: no answer
heartbeat-ack | 0B00 #### | a Heartbeat-ACK that nobody asked for: no answer
connect-request | 0600 #### P EEEEEEEEEEEEEEEEEEEEEEEEEEEEEEEE 0640 05D9 | a Connect-Request of the hub: out of place
disconnect-ack | 0900 #### | a Disconnect-ACK that nobody asked for: out of place
heartbeat-of-a-peer | 0A08 #### P | a Heartbeat-Request with an Originating address: out of place
several-1 | 0AF0 #### 99 | a reserved flag and a payload; or 150
several-2 | 0A02 #### 42 AA | an option that isn't understood and a payload; or 150
several-3 | 0D82 #### | a reserved flag, an unknown function, and cut options; or 143 147 silence
"""

# Before the hub has accepted the node: a NAK comes in every phase, and no request is answered.
ASKING = """
reserved | 0A80 #### | a Heartbeat-Request with a reserved flag
unknown | 0D00 #### | the function 0D
long-heartbeat | 0A00 #### AA | a Heartbeat-Request with a payload
short-accept | 0700 #### O | a Connect-Accept of six octets
heartbeat | 0A00 #### | a Heartbeat-Request: it isn't answered
disconnect | 0800 #### | a Disconnect-Request: it isn't answered
resolution | 0208 #### P | an Address-Resolution: it isn't answered
npdu | 0108 #### P 0100 | an NPDU
"""

# From a peer whose direct connection with the node is there.
DIRECT = """
reserved | 0A80 #### | a Heartbeat-Request with a reserved flag
unknown | 0D00 #### | the function 0D
unknown-of-the-peer | 0D08 #### P | the same, with the peer's own VMAC: the NAK has no Destination
not-understood | 0102 #### 42 0100 | an option that has to be understood
no-npdu | 0100 #### | an Encapsulated-NPDU without an NPDU
long-heartbeat | 0A00 #### AA | a Heartbeat-Request with a payload
proprietary | 0C00 #### 0104 05 AA | a Proprietary-Message of a vendor
wrong-origin | 0108 #### X 0100 | the Originating address of another node
wrong-destination | 0104 #### X 0100 | the Destination of another node
response | 0B00 #### AA | a Heartbeat-ACK with a payload
npdu | 0100 #### 0120FFFF00FF1008 | an NPDU: no NAK
"""
