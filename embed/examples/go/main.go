// The layers in front of a service in Go, by cgo. usage: layers PORT QUERIES
// CGO_CFLAGS=-IFOLDER CGO_LDFLAGS=ARCHIVE go build
package main

// #include <nutscythe.h>
import "C"

import (
	"net"
	"os"
	"strconv"
	"time"
	"unsafe"
)

// serve answers SERVFAIL to whatever is asked.
func serve(message []byte) []byte {
	answer := append([]byte(nil), message[:12]...)
	answer[2] |= 0x80
	answer[3] = 2
	for i := 4; i < 12; i++ {
		answer[i] = 0
	}
	return answer
}

func octets(b []byte) *C.uint8_t { return (*C.uint8_t)(unsafe.Pointer(&b[0])) }

func main() {
	port, _ := strconv.Atoi(os.Args[1])
	left, _ := strconv.Atoi(os.Args[2])
	link, err := net.ListenUDP("udp4", &net.UDPAddr{IP: net.IPv4(127, 0, 0, 1), Port: port})
	if err != nil {
		panic(err)
	}
	var settings C.nutscythe_settings
	if C.nutscythe_settings_new(true, true, &settings) != C.NUTSCYTHE_DONE {
		panic("no memory")
	}
	defer C.nutscythe_free(&settings)
	message, reply := make([]byte, 65536), make([]byte, 65536)
	room := C.size_t(len(reply))
	for ; left > 0; left-- {
		link.SetReadDeadline(time.Now().Add(10 * time.Second))
		n, from, err := link.ReadFromUDP(message)
		if err != nil {
			return
		}
		now := time.Now()
		origin := C.nutscythe_origin{at: C.uint64_t(now.UnixMilli()), secs: C.uint64_t(now.Unix()), port: C.uint16_t(from.Port), family: 4}
		for i, o := range from.IP.To4() {
			origin.octets[i] = C.uint8_t(o)
		}
		var size C.size_t
		var rule C.nutscythe_rule
		status := C.nutscythe_datagram(&settings, &origin, 1, octets(message), C.size_t(n), octets(reply), room, &size, &rule)
		if status == C.NUTSCYTHE_ASK {
			answer := serve(message[:n])
			status = C.nutscythe_rewrite(&rule, octets(answer), C.size_t(len(answer)), octets(reply), room, &size)
		}
		if status == C.NUTSCYTHE_REPLY {
			link.WriteToUDP(reply[:size], from)
		}
	}
}
