// Reads FIX messages, one a line, with QuickFIX, and says what it complains of.
//
//     read [DICTIONARY] < MESSAGES
//
// Each is read with validation: BodyLength, CheckSum, the first three fields, and that header, body and trailer stand in
// that order. With a data dictionary (FIX42.xml of QuickFIX) it is also held against that: required fields, types, values.
#include <quickfix/DataDictionary.h>
#include <quickfix/Message.h>
#include <iostream>
#include <memory>
#include <stdexcept>
#include <string>

static void read_one(const std::string& line, const FIX::DataDictionary* dictionary) {
    FIX::Message message;
    message.setString(line, true, dictionary, dictionary);
    int tag = 0;
    if (!message.hasValidStructure(tag)) throw std::runtime_error("out of order: tag " + std::to_string(tag));
    if (dictionary) dictionary->validate(message);
}

int main(int argc, char** argv) {
    std::unique_ptr<FIX::DataDictionary> dictionary;
    if (argc > 1) dictionary.reset(new FIX::DataDictionary(argv[1]));
    long passed = 0, failed = 0;
    std::string line;
    while (std::getline(std::cin, line)) {
        try {
            read_one(line, dictionary.get());
            passed++;
        } catch (const std::exception& fault) {
            if (++failed <= 10) std::cout << fault.what() << ": " << line << "\n";
        }
    }
    std::cout << passed << " passed, " << failed << " failed" << std::endl;
    return failed != 0;
}
