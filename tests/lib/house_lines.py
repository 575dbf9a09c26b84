"""A script for crates/test_store that has every command and every question."""

SCRIPT = """\
record
1000 0 register Ana
1000 0 register Ben
1000 0 register Cid
1000 0 add_category Books
1000 1 list 1 A1 Atlas An_atlas_of_1952 500 - 5000
1000 1 list 1 B2 Globe - 500 900 6000 800
1000 1 list 1 C3 Chart - 500 - 5000 700
1001 2 bid 1 500
1001 3 bid 1 1000
1001 3 bid 3 400
1001 2 buy 2
1001 2 watch 1
1001 2 watch 2
1001 2 unwatch 2
1001 2 ask 1 How_old?
1001 3 ask 1 Is_it_signed?
1002 1 answer 1 2 1 Old
5000 0 close
5000 0 settle 1
5000 3 feedback 1 1 Good
5000 1 feedback 1 0 -
fill
? clock
? counts
? member 1
? member_named Ben
? category 1
? category_named Books
? members
? categories
? item 1
? item_of 1 B2
? items
? items_in 1 0
? state 1
? standing 1
? reserve 2
? reserves 1 0
? own 1 3
? bids 3 0
? watched 2 1
? watches 2
? watch_count 2
? ask_count 1 2
? question 1 2 1
? questions 2 0
? published 1 0
? all_published
? waiting 1
? given 1 3
? ratings 1
? feedback 1 0
? all_feedback
? due 9000
? sales 1
""".splitlines()
