// Reads StatsD lines as Telegraf's parser does (split at the marks, tags in a map, ParseFloat), holds each part as a
// metric, and says how many there were: statsd IN.
package main

import (
	"bufio"
	"fmt"
	"log"
	"os"
	"strconv"
	"strings"
)

// A part of a line, with its tags.
type metric struct {
	name  string
	kind  string
	field string
	value interface{}
	tags  map[string]string
}

var kinds = map[string]string{"c": "counter", "g": "gauge", "ms": "timing", "h": "timing", "s": "set"}

// The line without its tags behind `|#`, which go into the map.
func withoutTags(line string, tags map[string]string) string {
	parts := strings.Split(line, "|")
	kept := make([]string, 0, len(parts))
	for _, part := range parts {
		if len(part) == 0 || part[0] != '#' {
			kept = append(kept, part)
			continue
		}
		for _, tag := range strings.Split(part[1:], ",") {
			if at := strings.IndexByte(tag, ':'); at >= 0 {
				tags[tag[:at]] = tag[at+1:]
			} else if tag != "" {
				tags[tag] = "true"
			}
		}
	}
	return strings.Join(kept, "|")
}

// The name and the tags in it.
func parseName(bucket string) (string, map[string]string) {
	tags := make(map[string]string)
	parts := strings.Split(bucket, ",")
	for _, tag := range parts[1:] {
		if at := strings.IndexByte(tag, '='); at > 0 {
			tags[tag[:at]] = tag[at+1:]
		}
	}
	return parts[0], tags
}

// The value of a part, divided by its rate where it is that of a counter.
func valueOf(parts []string) (interface{}, error) {
	if parts[1] == "s" {
		return parts[0], nil
	}
	value, err := strconv.ParseFloat(parts[0], 64)
	if err != nil {
		return nil, err
	}
	if len(parts) > 2 && len(parts[2]) > 1 && parts[2][0] == '@' {
		rate, err := strconv.ParseFloat(parts[2][1:], 64)
		if err != nil {
			return nil, err
		}
		if parts[1] == "c" && rate != 0 {
			value /= rate
		}
	}
	return value, nil
}

func parse(line string, metrics []metric) ([]metric, error) {
	tags := make(map[string]string)
	bits := strings.Split(withoutTags(line, tags), ":")
	if len(bits) < 2 {
		return metrics, fmt.Errorf("no colon in %q", line)
	}
	for _, bit := range bits[1:] {
		parts := strings.Split(bit, "|")
		if len(parts) < 2 || kinds[parts[1]] == "" {
			return metrics, fmt.Errorf("no type in %q", line)
		}
		value, err := valueOf(parts)
		if err != nil {
			return metrics, err
		}
		m := metric{kind: parts[1], field: "value", value: value}
		if parts[1] == "g" && (parts[0][0] == '+' || parts[0][0] == '-') {
			m.field = "delta"
		}
		m.name, m.tags = parseName(bits[0])
		m.tags["metric_type"] = kinds[parts[1]]
		for key, value := range tags {
			m.tags[key] = value
		}
		metrics = append(metrics, m)
	}
	return metrics, nil
}

func main() {
	if len(os.Args) != 2 {
		log.Fatal("statsd IN")
	}
	in, err := os.Open(os.Args[1])
	if err != nil {
		log.Fatal(err)
	}
	scanner := bufio.NewScanner(in)
	scanner.Buffer(make([]byte, 1<<17), 1<<17)
	pieces, refused, read := 0, 0, 0
	var metrics []metric
	for scanner.Scan() {
		pieces++
		if metrics, err = parse(scanner.Text(), metrics[:0]); err != nil {
			refused++
		} else {
			read += len(metrics)
		}
	}
	if err := scanner.Err(); err != nil {
		log.Fatal(err)
	}
	fmt.Printf("pieces %d refused %d passed 0 metrics %d\n", pieces, refused, read)
}
