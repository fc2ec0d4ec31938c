yes names | head -n 20000
echo 'line 20001: 81 bad word'
yes names | head -n 20000
echo 'line 40002: 81 bad word'
