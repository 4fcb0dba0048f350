// Reads expositions with Prometheus's parser of its text format, one after the other, and says how many samples there
// were; with a second word writes each with the encoder of OpenMetrics: openmetrics IN [OUT]. What it reads has to be
// of both formats: `# EOF` is a comment of the text format.
package main

import (
	"bufio"
	"bytes"
	"fmt"
	"log"
	"os"

	dto "github.com/prometheus/client_model/go"
	"github.com/prometheus/common/expfmt"
)

var end = []byte("# EOF\n")

// The families in the order of their first lines, which the parser's map loses.
func ordered(families map[string]*dto.MetricFamily, names []string) []*dto.MetricFamily {
	list := make([]*dto.MetricFamily, 0, len(families))
	for _, name := range names {
		if family := families[name]; family != nil {
			list = append(list, family)
		}
	}
	return list
}

// The names of the TYPE lines.
func namesOf(text []byte) []string {
	var names []string
	for _, line := range bytes.Split(text, []byte{'\n'}) {
		if rest := bytes.TrimPrefix(line, []byte("# TYPE ")); len(rest) < len(line) {
			names = append(names, string(rest[:bytes.IndexByte(rest, ' ')]))
		}
	}
	return names
}

func write(out *bufio.Writer, families []*dto.MetricFamily) error {
	for _, family := range families {
		if _, err := expfmt.MetricFamilyToOpenMetrics(out, family); err != nil {
			return err
		}
	}
	_, err := expfmt.FinalizeOpenMetrics(out)
	return err
}

func main() {
	if len(os.Args) < 2 {
		log.Fatal("openmetrics IN [OUT]")
	}
	in, err := os.Open(os.Args[1])
	if err != nil {
		log.Fatal(err)
	}
	var out *bufio.Writer
	if len(os.Args) > 2 {
		file, err := os.Create(os.Args[2])
		if err != nil {
			log.Fatal(err)
		}
		out = bufio.NewWriterSize(file, 1<<16)
		defer out.Flush()
	}
	reader := bufio.NewReaderSize(in, 1<<16)
	pieces, samples := 0, 0
	var text []byte
	for {
		line, err := reader.ReadSlice('\n')
		text = append(text, line...)
		if err != nil {
			break
		}
		if !bytes.Equal(line, end) {
			continue
		}
		pieces++
		var parser expfmt.TextParser
		families, err := parser.TextToMetricFamilies(bytes.NewReader(text))
		if err != nil {
			log.Fatal(err)
		}
		for _, family := range families {
			samples += len(family.Metric)
		}
		if out != nil {
			if err := write(out, ordered(families, namesOf(text))); err != nil {
				log.Fatal(err)
			}
		}
		text = text[:0]
	}
	fmt.Printf("pieces %d refused 0 passed 0 metrics %d\n", pieces, samples)
}
