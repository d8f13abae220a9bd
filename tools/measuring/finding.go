// Finds a path by Go's crypto/x509 so many times, for counts of instructions: time_finding.py builds it and runs it.
//
// FOLDER is as finding.c has it. WHAT is
//
//	go      Verify of the leaf under the roots, in a pool that is made once, over the candidates; these and the leaf are decoded each time
//	go-all  the same, and the roots are decoded each time too
//
// usage: finding FOLDER WHAT COUNT
package main

import (
	"crypto/x509"
	"encoding/binary"
	"fmt"
	"os"
	"path/filepath"
	"strconv"
	"time"
)

// 2026-11-30T00:00:00Z
var moment = time.Unix(1795996800, 0)

func must(err error) {
	if err != nil {
		fmt.Fprintln(os.Stderr, "finding:", err)
		os.Exit(1)
	}
}

// The certificates of a file, each with its length in four octets in front.
func read(name string) (found [][]byte) {
	octets, err := os.ReadFile(filepath.Join(os.Args[1], name))
	must(err)
	for len(octets) > 0 {
		end := 4 + int(binary.BigEndian.Uint32(octets))
		found = append(found, octets[4:end])
		octets = octets[end:]
	}
	return found
}

func decoded(octets []byte) *x509.Certificate {
	it, err := x509.ParseCertificate(octets)
	must(err)
	return it
}

func pool(certificates [][]byte) *x509.CertPool {
	made := x509.NewCertPool()
	for _, it := range certificates {
		made.AddCert(decoded(it))
	}
	return made
}

func main() {
	if len(os.Args) != 4 {
		fmt.Fprintln(os.Stderr, "usage: finding FOLDER WHAT COUNT")
		os.Exit(2)
	}
	roots, candidates, leaf := read("roots.bin"), read("candidates.bin"), read("leaf.bin")[0]
	count, err := strconv.Atoi(os.Args[3])
	must(err)
	known := pool(roots)
	for ; count > 0; count-- {
		if os.Args[2] == "go-all" {
			known = pool(roots)
		}
		chains, err := decoded(leaf).Verify(x509.VerifyOptions{
			Roots:         known,
			Intermediates: pool(candidates),
			CurrentTime:   moment,
			KeyUsages:     []x509.ExtKeyUsage{x509.ExtKeyUsageServerAuth},
		})
		must(err)
		if len(chains) != 1 || len(chains[0]) != 3 {
			must(fmt.Errorf("another path"))
		}
	}
}
