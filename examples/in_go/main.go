// Client 10 installs a configuration, an atom comes, and the client asks: what its report says.
package main

import (
	"bytes"
	"encoding/binary"
	"fmt"
	"log"
	"os"
	"os/exec"
	"time"

	"google.golang.org/protobuf/proto"
	"statsd/profile"
)

// Kinds of frames, and of replies that have a report (docs/SESSION.md).
const (
	atom, install, report       = 2, 16, 18
	reported, replaced, removed = 6, 8, 9
)

// A frame: its length, its kind and its body, each number with its low byte first.
func frame(kind byte, body ...any) []byte {
	content := bytes.NewBuffer([]byte{kind})
	for _, part := range body {
		binary.Write(content, binary.LittleEndian, part)
	}
	return append(binary.LittleEndian.AppendUint32(nil, uint32(content.Len())), content.Bytes()...)
}

// An entry of an atom: its field, index, sub and flags, its type (1 is Int), and its value.
func integer(field byte, value int32) []byte {
	return binary.LittleEndian.AppendUint32([]byte{field, 0, 0, 0, 1}, uint32(value))
}

func show(list *profile.ConfigMetricsReportList) {
	for _, metric := range list.GetReports()[0].GetMetrics() {
		for _, data := range metric.GetCountMetrics().GetData() {
			for _, bucket := range data.GetBucketInfo() {
				from, to := bucket.GetStartBucketElapsedNanos(), bucket.GetEndBucketElapsedNanos()
				fmt.Printf("metric %d: %d from %v to %v\n", metric.GetMetricId(), bucket.GetCount(),
					time.Duration(from), time.Duration(to))
			}
		}
	}
}

func main() {
	simple := &profile.AtomMatcher_SimpleAtomMatcher{
		SimpleAtomMatcher: &profile.SimpleAtomMatcher{AtomId: proto.Int32(30)},
	}
	config, err := proto.Marshal(&profile.StatsdConfig{
		AtomMatcher: []*profile.AtomMatcher{{Id: proto.Int64(1), Contents: simple}},
		CountMetric: []*profile.CountMetric{{Id: proto.Int64(100), What: proto.Int64(1)}},
	})
	if err != nil {
		log.Fatal(err)
	}
	session := bytes.Join([][]byte{
		frame(install, int32(10), int64(1), config),
		frame(atom, uint64(1_500_000_000), uint32(30), integer(1, 5)),
		frame(report, int32(10), int64(1), byte(1)), // with a cut
	}, nil)
	engine := exec.Command(os.Args[1], "replay")
	engine.Stdin, engine.Stderr = bytes.NewReader(session), os.Stderr
	replies, err := engine.Output()
	if err != nil {
		log.Print(err) // the status: what came before the fault is in the replies
	}
	for len(replies) >= 8 {
		size := binary.LittleEndian.Uint64(replies)
		if size > uint64(len(replies)-8) {
			log.Fatal("a reply that was cut")
		}
		reply := replies[8 : 8+size]
		replies = replies[8+size:]
		if kind := reply[0]; kind == reported || kind == replaced || kind == removed {
			list := &profile.ConfigMetricsReportList{}
			if err := proto.Unmarshal(reply[13:], list); err != nil {
				log.Fatal(err)
			}
			show(list)
		}
	}
}
