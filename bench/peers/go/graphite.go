// Reads lines of Graphite with InfluxDB's parser, each into a point, and says how many there were:
// graphite IN TEMPLATE..
package main

import (
	"bufio"
	"fmt"
	"log"
	"os"

	"github.com/influxdata/influxdb/models"
	"github.com/influxdata/influxdb/services/graphite"
)

// The last point, so that none is left out.
var last models.Point

func main() {
	if len(os.Args) < 2 {
		log.Fatal("graphite IN TEMPLATE..")
	}
	parser, err := graphite.NewParser(os.Args[2:], nil)
	if err != nil {
		log.Fatal(err)
	}
	in, err := os.Open(os.Args[1])
	if err != nil {
		log.Fatal(err)
	}
	scanner := bufio.NewScanner(in)
	scanner.Buffer(make([]byte, 1<<17), 1<<17)
	pieces, refused := 0, 0
	for scanner.Scan() {
		pieces++
		point, err := parser.Parse(scanner.Text())
		if err != nil {
			refused++
		} else {
			last = point
		}
	}
	if err := scanner.Err(); err != nil {
		log.Fatal(err)
	}
	fmt.Printf("pieces %d refused %d passed 0 metrics %d\n", pieces, refused, pieces-refused)
}
