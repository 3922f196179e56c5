echo '2026-12-01' | ./sno edit -e "POS(4) '-' LEN(2) . MONTH '-' = '/' MONTH '/'"
