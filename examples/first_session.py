#!/usr/bin/python3
"""Opens a page in the first browser that the hub gives, and prints its title.

Usage: first_session.py [HUB]    HUB is an address as 127.0.0.1:4444, which it is by default.
"""
import sys

try:
    from selenium import webdriver
except ImportError:
    print("first_session.py: this python has no selenium: apt-get install python3-selenium, or pip install selenium", file=sys.stderr)
    sys.exit(2)

options = webdriver.ChromeOptions()
# Chrome's own sandbox doesn't start as root, nor in most containers.
for argument in ("--headless=new", "--no-sandbox"):
    options.add_argument(argument)
hub = sys.argv[1] if len(sys.argv) > 1 else "127.0.0.1:4444"
with webdriver.Remote(f"http://{hub}", options=options) as driver:
    driver.get("data:text/html,<title>A page</title>")
    print(driver.title)
