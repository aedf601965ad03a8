"""The tests of ../test_clients.py, which runs them."""
