select dec_sum(l_extendedprice * l_discount, 4) as revenue
from t_scaled
where l_shipdate >= '1994-01-01' and l_shipdate < '1995-01-01'
  and l_discount between dec('0.05') and dec('0.07') and l_quantity < 24
