// Reads points with InfluxDB's parser, holds each as Telegraf holds a metric, and writes them back with the
// line-protocol encoder, a thousand a batch: main IN OUT.
package main

import (
	"bufio"
	"bytes"
	"io"
	"log"
	"os"
	"time"

	"github.com/influxdata/influxdb1-client/models"
	protocol "github.com/influxdata/line-protocol"
)

const batchLines = 1000

// A metric with texts of its own, its tags and fields in order.
type metric struct {
	name   string
	tags   []*protocol.Tag
	fields []*protocol.Field
	time   time.Time
}

func (m *metric) Name() string                 { return m.name }
func (m *metric) Time() time.Time              { return m.time }
func (m *metric) TagList() []*protocol.Tag     { return m.tags }
func (m *metric) FieldList() []*protocol.Field { return m.fields }

// The value of the field at which the iterator stands.
func valueOf(fields models.FieldIterator) (interface{}, error) {
	switch fields.Type() {
	case models.Integer:
		return fields.IntegerValue()
	case models.Unsigned:
		return fields.UnsignedValue()
	case models.Float:
		return fields.FloatValue()
	case models.Boolean:
		return fields.BooleanValue()
	}
	return fields.StringValue(), nil
}

// A point as a metric. The point's own list of fields is a map, which loses their order; its iterator keeps it.
func metricOf(point models.Point) (*metric, error) {
	m := &metric{name: string(point.Name()), time: point.Time()}
	tags := point.Tags()
	m.tags = make([]*protocol.Tag, 0, len(tags))
	for _, tag := range tags {
		m.tags = append(m.tags, &protocol.Tag{Key: string(tag.Key), Value: string(tag.Value)})
	}
	fields := point.FieldIterator()
	for fields.Next() {
		value, err := valueOf(fields)
		if err != nil {
			return nil, err
		}
		m.fields = append(m.fields, &protocol.Field{Key: string(fields.FieldKey()), Value: value})
	}
	return m, nil
}

// The next lines, at most a batch of them, and whether there are more.
func readBatch(in *bufio.Reader, lines []byte) ([]byte, bool, error) {
	for count := 0; count < batchLines; count++ {
		for {
			part, err := in.ReadSlice('\n')
			lines = append(lines, part...)
			if err == bufio.ErrBufferFull {
				continue
			}
			if err == io.EOF {
				return lines, false, nil
			}
			if err != nil {
				return lines, false, err
			}
			break
		}
	}
	return lines, true, nil
}

// Reads the lines of a batch as metrics.
func parse(lines []byte) ([]*metric, error) {
	points, err := models.ParsePointsWithPrecision(lines, time.Now(), "n")
	if err != nil {
		return nil, err
	}
	metrics := make([]*metric, 0, len(points))
	for _, point := range points {
		m, err := metricOf(point)
		if err != nil {
			return nil, err
		}
		metrics = append(metrics, m)
	}
	return metrics, nil
}

func pipe(in io.Reader, out io.Writer) error {
	reader := bufio.NewReaderSize(in, 1<<16)
	var lines []byte
	var text bytes.Buffer
	encoder := protocol.NewEncoder(&text)
	encoder.SetFieldTypeSupport(protocol.UintSupport)
	encoder.FailOnFieldErr(true)
	for more := true; more; {
		var err error
		if lines, more, err = readBatch(reader, lines[:0]); err != nil {
			return err
		}
		metrics, err := parse(lines)
		if err != nil {
			return err
		}
		text.Reset()
		for _, m := range metrics {
			if _, err := encoder.Encode(m); err != nil {
				return err
			}
		}
		if _, err := out.Write(text.Bytes()); err != nil {
			return err
		}
	}
	return nil
}

func main() {
	if len(os.Args) != 3 {
		log.Fatal("main IN OUT")
	}
	in, err := os.Open(os.Args[1])
	if err != nil {
		log.Fatal(err)
	}
	out, err := os.Create(os.Args[2])
	if err != nil {
		log.Fatal(err)
	}
	if err := pipe(in, out); err != nil {
		log.Fatal(err)
	}
	if err := out.Close(); err != nil {
		log.Fatal(err)
	}
}
