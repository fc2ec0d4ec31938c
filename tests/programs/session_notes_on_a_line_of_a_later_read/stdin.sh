yes '1 list' | head -n 20000
echo '1 nuw'
yes '1 list' | head -n 20000
echo '1 old'
