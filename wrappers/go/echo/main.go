// Echo is the program of examples/echo/echo.c in Go.
package main

import (
	"bytes"
	"errors"
	"fmt"
	"os"

	"sctprattle"
)

const (
	messages   = 100
	longest    = 3000
	packetSize = 1200
	header     = 12
	stream     = 1
	inFlight   = 32
)

// must ends the program where a call was refused.
func must(err error) {
	if err != nil {
		fmt.Fprintln(os.Stderr, "echo:", err)
		os.Exit(1)
	}
}

type host struct {
	sender   *sctprattle.Sender
	receiver *sctprattle.Receiver
	head     sctprattle.Head
	hasNews  bool
}

func newHost(head sctprattle.Head) *host {
	sender, err := sctprattle.NewSender(1000, packetSize-28, longest, false)
	must(err)
	receiver, err := sctprattle.NewReceiver(1000, longest, 1<<16, 1000)
	must(err)
	must(sender.Open(stream))
	must(receiver.Open(stream))
	return &host{sender: sender, receiver: receiver, head: head}
}

func (h *host) close() {
	h.sender.Close()
	h.receiver.Close()
}

// writePacket writes a packet: a SACK, where anything came, what is to be sent again, and what waits. Its length is header where there is
// nothing.
func (h *host) writePacket(now uint64, packet []byte) int {
	length := header
	if h.hasNews {
		n, err := h.receiver.WriteSack(packet[length:])
		must(err)
		length += n
		h.hasNews = false
	}
	for marked, ok := h.sender.NextToRetransmit(); ok; marked, ok = h.sender.NextToRetransmit() {
		n, err := h.sender.Resend(marked.TSN, now, packet[length:])
		if errors.Is(err, sctprattle.CodeShortBuffer) {
			break
		}
		must(err)
		length += n
	}
	for h.sender.ChunksInFlight() < inFlight {
		n, _, err := h.sender.SendNext(now, packet[length:])
		if errors.Is(err, sctprattle.CodeShortBuffer) {
			break
		}
		must(err)
		if n == 0 {
			break
		}
		length += n
	}
	if length > header {
		must(sctprattle.SealPacket(h.head, packet[:length]))
	}
	return length
}

func (h *host) takePacket(datagram []byte) {
	_, chunks, err := sctprattle.ReadPacket(datagram)
	must(err)
	for _, chunk := range chunks {
		switch chunk.Type {
		case sctprattle.ChunkData:
			_, err := h.receiver.Data(chunk.Bytes)
			must(err)
			h.hasNews = true
		case sctprattle.ChunkSack:
			acked, _, err := h.sender.Acked(chunk.Bytes)
			must(err)
			if len(acked) > 0 {
				h.sender.AddMissIndications(acked[len(acked)-1].TSN)
			}
		}
	}
}

type network struct {
	state           uint32
	datagrams, lost int
}

func (n *network) loses() bool {
	n.state ^= n.state << 13
	n.state ^= n.state >> 17
	n.state ^= n.state << 5
	n.datagrams++
	if n.state%5 != 0 {
		return false
	}
	n.lost++
	return true
}

func (n *network) sendAll(from, to *host, now uint64) {
	packet := make([]byte, packetSize)
	for length := from.writePacket(now, packet); length > header; length = from.writePacket(now, packet) {
		if !n.loses() {
			to.takePacket(packet[:length])
		}
	}
}

func message(number int) []byte {
	bytes := make([]byte, 1+number*number*37%longest)
	for i := range bytes {
		bytes[i] = byte(number + i)
	}
	return bytes
}

func (h *host) write(message []byte) {
	_, _, err := h.sender.Write(stream, sctprattle.PPIDBinary, message)
	must(err)
}

// read is the next message, nil where there is none.
func (h *host) read() []byte {
	m, err := h.receiver.Read(stream)
	must(err)
	if m == nil {
		return nil
	}
	return m.Bytes
}

func main() {
	a, b := newHost(sctprattle.Head{VerificationTag: 1, SourcePort: 5000, DestinationPort: 5001}),
		newHost(sctprattle.Head{VerificationTag: 2, SourcePort: 5001, DestinationPort: 5000})
	defer a.close()
	defer b.close()
	net := network{state: 1}
	written, echoed, rounds, all := 0, 0, 0, 0
	for ; echoed < messages && rounds < 10000; rounds++ {
		now := uint64(rounds) * 100000000
		if written < messages {
			a.write(message(written))
			written++
		}
		if rounds%4 == 3 {
			must(a.sender.RetransmitAll())
			must(b.sender.RetransmitAll())
		}
		net.sendAll(a, b, now)
		for m := b.read(); m != nil; m = b.read() {
			b.write(m)
		}
		net.sendAll(b, a, now)
		for m := a.read(); m != nil; m = a.read() {
			if !bytes.Equal(m, message(echoed)) {
				must(errors.New("a message differs"))
			}
			echoed++
			all += len(m)
		}
	}
	fmt.Printf("echo: %d messages with %d bytes came back, %d datagrams, %d lost, %d rounds\n", echoed, all, net.datagrams, net.lost, rounds)
	if echoed != messages {
		os.Exit(1)
	}
}
