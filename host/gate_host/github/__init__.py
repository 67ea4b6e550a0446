"""What a host of a repository on GitHub needs besides: its API, and what stands in the answers. It needs Debian's python3-httpx, and for an
app python3-jwt with python3-cryptography. Nothing else of the host imports it."""
