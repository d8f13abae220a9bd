// Validates paths by Go's crypto/x509, for counts of instructions: time_validating.py builds and runs it. CASE is a file of validating_inputs.py. WHAT is asked
// so many times, and then the last answer is printed: "yes", or "no" and why. It is
//
//	path   Verify under the anchor, in a pool that is made once; the path is decoded each time
//	crl    the same, and the CRL is decoded each time, its signature and its dates are checked, and the last certificate is looked for among the entries
//	again  that alone, of a certificate and a CRL that are decoded once
//
// usage: validating CASE WHAT COUNT
package main

import (
	"crypto/x509"
	"encoding/binary"
	"errors"
	"fmt"
	"os"
	"strconv"
	"time"
)

var (
	// 2026-11-30T00:00:00Z
	moment    = time.Unix(1795996800, 0)
	roots     = x509.NewCertPool()
	path      [][]byte // topmost first
	list      []byte
	kept      *x509.Certificate
	keptList  *x509.RevocationList
	errListed = errors.New("revoked")
)

func must(err error) {
	if err != nil {
		fmt.Fprintln(os.Stderr, "validating:", err)
		os.Exit(1)
	}
}

func readCase(name string) {
	octets, err := os.ReadFile(name)
	must(err)
	for len(octets) > 0 {
		end := 5 + int(binary.BigEndian.Uint32(octets[1:]))
		switch octets[0] {
		case 'a':
			root, err := x509.ParseCertificate(octets[5:end])
			must(err)
			roots.AddCert(root)
		case 'c':
			path = append(path, octets[5:end])
		case 'l':
			list = octets[5:end]
		}
		octets = octets[end:]
	}
}

// The last certificate and the one above it, if there is one, where the path is valid.
func verified() (last, above *x509.Certificate, err error) {
	others := x509.NewCertPool()
	for place, octets := range path {
		it, err := x509.ParseCertificate(octets)
		if err != nil {
			return nil, nil, err
		}
		if place+1 < len(path) {
			others.AddCert(it)
			above = it
		} else {
			last = it
		}
	}
	_, err = last.Verify(x509.VerifyOptions{Roots: roots, Intermediates: others, CurrentTime: moment, KeyUsages: []x509.ExtKeyUsage{x509.ExtKeyUsageAny}})
	return last, above, err
}

func listed(found *x509.RevocationList, last *x509.Certificate) error {
	for at := range found.RevokedCertificates {
		if found.RevokedCertificates[at].SerialNumber.Cmp(last.SerialNumber) == 0 {
			return errListed
		}
	}
	return nil
}

func askPath() error {
	_, _, err := verified()
	return err
}

func askCrl() error {
	last, above, err := verified()
	if err != nil {
		return err
	}
	found, err := x509.ParseRevocationList(list)
	if err != nil {
		return err
	}
	if err := found.CheckSignatureFrom(above); err != nil {
		return err
	}
	if moment.Before(found.ThisUpdate) || moment.After(found.NextUpdate) {
		return errors.New("a CRL out of its dates")
	}
	return listed(found, last)
}

func askAgain() error {
	return listed(keptList, kept)
}

func main() {
	asks := map[string]func() error{"path": askPath, "crl": askCrl, "again": askAgain}
	if len(os.Args) != 4 || asks[os.Args[2]] == nil {
		fmt.Fprintln(os.Stderr, "usage: validating CASE WHAT COUNT")
		os.Exit(2)
	}
	readCase(os.Args[1])
	if os.Args[2] == "again" {
		var err error
		kept, err = x509.ParseCertificate(path[len(path)-1])
		must(err)
		keptList, err = x509.ParseRevocationList(list)
		must(err)
	}
	count, err := strconv.Atoi(os.Args[3])
	must(err)
	var found error
	for ; count > 0; count-- {
		found = asks[os.Args[2]]()
	}
	if found == nil {
		fmt.Println("yes")
	} else {
		fmt.Println("no:", found)
	}
}
