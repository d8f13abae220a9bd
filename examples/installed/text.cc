// Prints all that a certificate has, a line for each thing.
#include <fstream>
#include <iostream>
#include <iterator>
#include <string>
#include <vector>
#include <x509.h>

int main(int argc, char **argv)
{
    std::ifstream file(argc == 2 ? argv[1] : "", std::ios::binary);
    const std::vector<char> read{std::istreambuf_iterator<char>(file), {}};
    const auto *der = reinterpret_cast<const uint8_t *>(read.data());
    std::string text;
    std::size_t written = 0;
    x509_status status;
    while ((status = x509_certificate_text(der, read.size(), reinterpret_cast<uint8_t *>(text.data()), text.size(), &written)) == X509_ROOM)
        text.resize(written);
    if (status != X509_OK) {
        std::cerr << "refused with " << status << '\n';
        return 1;
    }
    std::cout << text;
}
