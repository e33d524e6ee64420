// The server's own chunks, by its Go package tsdb/chunkenc (Prometheus 2.42; its source at src/github.com/prometheus/prometheus of GOPATH, and
// github.com/pkg/errors; GO111MODULE=off).
//
//	go run xor_vectors.go check FILE          compares each vector of crates/format_tests/src/xor.rt with the server's chunk
//	go run xor_vectors.go fill FILE           prints FILE with the server's chunk put into each vector
//	go run xor_vectors.go lists COUNT SEED    prints random lists, one on a line, with a tab and the chunk's bytes in hexadecimal
//
// The samples of a list are words: TIME/VALUE*COUNT. A TIME is a number, or + and what is added to the time before; a VALUE is the 64 bits of the
// float in hexadecimal, or + or ^ and what is added to the bits before or xored with them, and may be missing if they stay; *COUNT repeats the word.
// In a vector the chunk is written in hexadecimal, or as its length and its CRC-32C if it has more than 64 bytes.
//
// The 10,000 lists of `lists 10000 1` are compared with the proved code by a program that reads these lines, encodes each list, decodes each chunk by
// `decode` and `decode_exact`, and compares; `.ci/xor.py --lines` reads the same lines.
package main

import (
	"fmt"
	"hash/crc32"
	"math"
	"math/rand"
	"os"
	"regexp"
	"strconv"
	"strings"

	"github.com/prometheus/prometheus/tsdb/chunkenc"
)

type sample struct {
	time  int64
	value uint64
}

func check(err error) {
	if err != nil {
		panic(err)
	}
}

// The samples of the words.
func samplesOf(text string) []sample {
	var samples []sample
	var now sample
	for _, word := range strings.Fields(text) {
		count := 1
		if i := strings.IndexByte(word, '*'); i >= 0 {
			n, err := strconv.Atoi(word[i+1:])
			check(err)
			word, count = word[:i], n
		}
		time, value, changed := strings.Cut(word, "/")
		for ; count > 0; count-- {
			t, err := strconv.ParseInt(strings.TrimPrefix(time, "+"), 10, 64)
			check(err)
			if strings.HasPrefix(time, "+") {
				t += now.time
			}
			now.time = t
			if changed {
				v, err := strconv.ParseUint(strings.TrimLeft(value, "+^"), 16, 64)
				check(err)
				switch value[0] {
				case '+':
					v += now.value
				case '^':
					v ^= now.value
				}
				now.value = v
			}
			samples = append(samples, now)
		}
	}
	return samples
}

// The server's chunk.
func chunkOf(samples []sample) []byte {
	chunk := chunkenc.NewXORChunk()
	appender, err := chunk.Appender()
	check(err)
	for _, s := range samples {
		appender.Append(s.time, math.Float64frombits(s.value))
	}
	return chunk.Bytes()
}

// The chunk as a vector has it.
func shown(chunk []byte) string {
	if len(chunk) > 64 {
		return fmt.Sprintf("%d %08X", len(chunk), crc32.Checksum(chunk, crc32.MakeTable(crc32.Castagnoli)))
	}
	return fmt.Sprintf("%X", chunk)
}

var table = regexp.MustCompile(`(?s)const CHUNKS.*?\n\];`)
var vector = regexp.MustCompile(`"([^"=]*) = ([^"]*)"`)

func checkFile(text string) {
	vectors := vector.FindAllStringSubmatch(table.FindString(text), -1)
	bad := 0
	for _, v := range vectors {
		if is := shown(chunkOf(samplesOf(v[1]))); is != v[2] {
			bad++
			fmt.Println(v[1], "is", is, "and not", v[2])
		}
	}
	fmt.Println(len(vectors), "vectors,", bad, "differ")
	if bad > 0 || len(vectors) == 0 {
		os.Exit(1)
	}
}

func fill(text string) string {
	return table.ReplaceAllStringFunc(text, func(lines string) string {
		return vector.ReplaceAllStringFunc(lines, func(found string) string {
			v := vector.FindStringSubmatch(found)
			return fmt.Sprintf("\"%s = %s\"", v[1], shown(chunkOf(samplesOf(v[1]))))
		})
	})
}

var values = []uint64{0, 1, 1 << 63, 0x7ff0000000000000, 0xfff0000000000000, 0x7ff8000000000001, 0x7ff0000000000002, 0x7ff0000000000001, math.MaxUint64, 0x3ff0000000000000, 5, 1 << 31, 1 << 32, 1 << 33}
var times = []int64{math.MinInt64, math.MinInt64 + 1, -1, 0, 1, math.MaxInt64 - 1, math.MaxInt64, 1 << 13, 1<<13 + 1, -(1 << 13), 1 - (1 << 13), 1<<16 + 1, 1 << 19}
var steps = []int64{0, 1, -1, 1 << 13, 1<<13 + 1, 1 - 1<<13, -(1 << 13), 1 << 16, 1<<16 + 1, 1 - 1<<16, -(1 << 16), 1 << 19, 1<<19 + 1, 1 - 1<<19, -(1 << 19)}

// A list of up to 120 samples, whose times and values change in one way each.
func randomList(r *rand.Rand) []sample {
	samples := make([]sample, r.Intn(40))
	if r.Intn(10) == 0 {
		samples = make([]sample, 120)
	}
	now := sample{1600000000000 + r.Int63n(1e9), math.Float64bits(float64(r.Intn(1000)))}
	step := int64(15000)
	timeWay, valueWay := r.Intn(6), r.Intn(7)
	for i := range samples {
		switch timeWay {
		case 0: // regular
			now.time += step
		case 1: // a few milliseconds early or late
			now.time += step + int64(r.Intn(7)) - 3
		case 2: // at the bounds of the classes
			step += steps[r.Intn(len(steps))]
			now.time += step
		case 3: // any
			now.time = int64(r.Uint64())
		case 4: // extreme
			now.time = times[r.Intn(len(times))]
		case 5: // of any size
			now.time += int64(r.Uint64() >> uint(r.Intn(64)))
		}
		switch valueWay {
		case 0: // any
			now.value = r.Uint64()
		case 1: // a counter
			now.value = math.Float64bits(math.Float64frombits(now.value) + float64(r.Intn(100)))
		case 2: // special
			now.value = values[r.Intn(len(values))]
		case 3: // one bit
			now.value ^= 1 << uint(r.Intn(64))
		case 4: // a run of bits
			now.value ^= (r.Uint64() >> uint(r.Intn(65))) << uint(r.Intn(64))
		case 5: // a gauge
			now.value = math.Float64bits(r.NormFloat64() * 10)
		case 6: // mostly the same
			if r.Intn(4) == 0 {
				now.value = math.Float64bits(float64(r.Intn(5)))
			}
		}
		samples[i] = now
	}
	return samples
}

func printLists(count, seed int) {
	r := rand.New(rand.NewSource(int64(seed)))
	for ; count > 0; count-- {
		samples := randomList(r)
		words := make([]string, len(samples))
		for i, s := range samples {
			words[i] = fmt.Sprintf("%d/%X", s.time, s.value)
		}
		fmt.Printf("%s\t%X\n", strings.Join(words, " "), chunkOf(samples))
	}
}

func main() {
	if len(os.Args) == 3 && (os.Args[1] == "check" || os.Args[1] == "fill") {
		text, err := os.ReadFile(os.Args[2])
		check(err)
		if os.Args[1] == "check" {
			checkFile(string(text))
		} else {
			fmt.Print(fill(string(text)))
		}
		return
	}
	if len(os.Args) == 4 && os.Args[1] == "lists" {
		count, err := strconv.Atoi(os.Args[2])
		check(err)
		seed, err := strconv.Atoi(os.Args[3])
		check(err)
		printLists(count, seed)
		return
	}
	fmt.Fprintln(os.Stderr, "xor_vectors.go check FILE | fill FILE | lists COUNT SEED")
	os.Exit(2)
}
