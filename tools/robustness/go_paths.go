// Finds paths by Go's crypto/x509, for compare_forests.py.
//
// MOMENT is the time at which paths are to be valid, in seconds since 1970-01-01T00:00:00Z. Standard input has lines of a word and octets in hex: `root` and
// `other` come with a certificate that is trusted, or with one that isn't, and `any` or `server` with the last certificate of a path, which Verify of it is asked
// for: over these, for any purpose or for that of a server. The next line begins anew. Of each is printed how many certificates the shortest of the chains has
// that Verify gives, without its root; or the fault, behind `refused: `.
//
// usage: go_paths MOMENT
package main

import (
	"bufio"
	"crypto/x509"
	"encoding/hex"
	"fmt"
	"os"
	"strconv"
	"strings"
	"time"
)

func main() {
	if len(os.Args) != 2 {
		fmt.Fprintln(os.Stderr, "usage: go_paths MOMENT")
		os.Exit(2)
	}
	seconds, err := strconv.ParseInt(os.Args[1], 10, 64)
	if err != nil {
		fmt.Fprintln(os.Stderr, "go_paths:", err)
		os.Exit(2)
	}
	purposes := map[string]x509.ExtKeyUsage{"any": x509.ExtKeyUsageAny, "server": x509.ExtKeyUsageServerAuth}
	roots, others := x509.NewCertPool(), x509.NewCertPool()
	lines := bufio.NewScanner(os.Stdin)
	lines.Buffer(nil, 1<<20)
	for lines.Scan() {
		word, digits, _ := strings.Cut(lines.Text(), " ")
		octets, err := hex.DecodeString(digits)
		if err != nil {
			fmt.Fprintln(os.Stderr, "go_paths:", err)
			os.Exit(2)
		}
		certificate, err := x509.ParseCertificate(octets)
		if err != nil {
			fmt.Fprintln(os.Stderr, "go_paths:", err)
			os.Exit(2)
		}
		switch word {
		case "root":
			roots.AddCert(certificate)
		case "other":
			others.AddCert(certificate)
		default:
			fmt.Println(answer(certificate, x509.VerifyOptions{
				Roots:         roots,
				Intermediates: others,
				CurrentTime:   time.Unix(seconds, 0),
				KeyUsages:     []x509.ExtKeyUsage{purposes[word]},
			}))
			roots, others = x509.NewCertPool(), x509.NewCertPool()
		}
	}
}

func answer(leaf *x509.Certificate, asked x509.VerifyOptions) string {
	chains, err := leaf.Verify(asked)
	if err != nil {
		return "refused: " + strings.ReplaceAll(err.Error(), "\n", " ")
	}
	shortest := len(chains[0])
	for _, it := range chains {
		if len(it) < shortest {
			shortest = len(it)
		}
	}
	return strconv.Itoa(shortest - 1)
}
