// SPDX-License-Identifier: Apache-2.0
// The end of pion: `pion connect|listen zero|crc32c` over the datagrams of descriptor 3. It says a word on stream 7, and sends each message
// back on the stream on which it came.
package main

import (
	"fmt"
	"net"
	"os"

	"github.com/pion/logging"
	"github.com/pion/sctp"
)

const largest = 1 << 18

func stop(err error) {
	if err != nil {
		fmt.Fprintln(os.Stderr, "pion:", err)
		os.Exit(1)
	}
}

func sendBack(stream *sctp.Stream) {
	message := make([]byte, largest)
	for {
		length, kind, err := stream.ReadSCTP(message)
		if err != nil {
			return
		}
		_, err = stream.WriteSCTP(message[:length], kind)
		if err != nil {
			return
		}
	}
}

func main() {
	link, err := net.FileConn(os.NewFile(3, "link"))
	stop(err)
	config := sctp.Config{
		NetConn:              link,
		LoggerFactory:        logging.NewDefaultLoggerFactory(),
		EnableZeroChecksum:   os.Args[2] == "zero",
		MaxReceiveBufferSize: 2 * largest,
		MaxMessageSize:       largest,
	}
	begin := sctp.Server
	if os.Args[1] == "connect" {
		begin = sctp.Client
	}
	association, err := begin(config)
	stop(err)
	own, err := association.OpenStream(7, sctp.PayloadTypeWebRTCString)
	stop(err)
	_, err = own.WriteSCTP([]byte("hello"), sctp.PayloadTypeWebRTCString)
	stop(err)
	go sendBack(own)
	for {
		stream, err := association.AcceptStream()
		if err != nil {
			return
		}
		go sendBack(stream)
	}
}
