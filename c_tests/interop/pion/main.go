// Pion sends each message back on its stream, over pion/sctp; datagrams come and go through two pipes, each behind its length.
package main

import (
	"encoding/binary"
	"io"
	"log"
	"net"
	"os"
	"sync"
	"time"

	"github.com/pion/logging"
	"github.com/pion/sctp"
)

// pipes are the two pipes as one connection.
type pipes struct {
	in, out *os.File
	write   sync.Mutex
}

func (p *pipes) Read(b []byte) (int, error) {
	var head [4]byte
	if _, err := io.ReadFull(p.in, head[:]); err != nil {
		return 0, err
	}
	datagram := make([]byte, binary.LittleEndian.Uint32(head[:]))
	if _, err := io.ReadFull(p.in, datagram); err != nil {
		return 0, err
	}
	return copy(b, datagram), nil
}

func (p *pipes) Write(b []byte) (int, error) {
	p.write.Lock()
	defer p.write.Unlock()
	datagram := make([]byte, 4+len(b))
	binary.LittleEndian.PutUint32(datagram, uint32(len(b)))
	copy(datagram[4:], b)
	if _, err := p.out.Write(datagram); err != nil {
		return 0, err
	}
	return len(b), nil
}

func (p *pipes) Close() error                     { p.out.Close(); return p.in.Close() }
func (p *pipes) LocalAddr() net.Addr              { return &net.UnixAddr{} }
func (p *pipes) RemoteAddr() net.Addr             { return &net.UnixAddr{} }
func (p *pipes) SetDeadline(time.Time) error      { return nil }
func (p *pipes) SetReadDeadline(time.Time) error  { return nil }
func (p *pipes) SetWriteDeadline(time.Time) error { return nil }

// modes are those of examples/c/messages.c, by stream.
var modes = [8]struct {
	unordered bool
	kind      byte
	value     uint32
}{
	{false, sctp.ReliabilityTypeReliable, 0}, {true, sctp.ReliabilityTypeReliable, 0},
	{false, sctp.ReliabilityTypeRexmit, 0}, {true, sctp.ReliabilityTypeRexmit, 0},
	{false, sctp.ReliabilityTypeRexmit, 2}, {true, sctp.ReliabilityTypeRexmit, 2},
	{false, sctp.ReliabilityTypeTimed, 300}, {true, sctp.ReliabilityTypeTimed, 300},
}

func echo(s *sctp.Stream) {
	mode := modes[s.StreamIdentifier()%8]
	s.SetReliabilityParams(mode.unordered, mode.kind, mode.value)
	buf := make([]byte, 1<<20)
	for {
		n, ppi, err := s.ReadSCTP(buf)
		if err != nil {
			return
		}
		if _, err := s.WriteSCTP(buf[:n], ppi); err != nil {
			return
		}
	}
}

func main() {
	in, err := os.OpenFile(os.Args[1], os.O_RDONLY, 0)
	if err != nil {
		log.Fatal(err)
	}
	out, err := os.OpenFile(os.Args[2], os.O_WRONLY, 0)
	if err != nil {
		log.Fatal(err)
	}
	association, err := sctp.Server(sctp.Config{
		NetConn:              &pipes{in: in, out: out},
		MaxReceiveBufferSize: 4 << 20,
		MaxMessageSize:       256 * 1024,
		LoggerFactory:        logging.NewDefaultLoggerFactory(),
	})
	if err != nil {
		log.Fatal(err)
	}
	for {
		s, err := association.AcceptStream()
		if err != nil {
			return
		}
		go echo(s)
	}
}
