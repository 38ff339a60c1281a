# The suites, and the files that they share.
suites="harness short_calls damage records buffers drawings histories"
shared="groups table lent runs wild fitting reading writing drawing enumerating program making ending reference"
