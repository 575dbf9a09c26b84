import http.client, sys
port = int(sys.argv[1])
for how in ("POST", "GET"):
    c = http.client.HTTPConnection("127.0.0.1", port)
    if how == "POST":
        c.request("POST", "/items/1/bids", body='{"maximum":500}', headers={"x-member": "2", "x-moment": "1001"})
    else:
        c.request("GET", "/items/1", headers={"x-member": "2"})
    c.getresponse().read(); c.close()
