select l_returnflag, l_linestatus, sum(l_quantity) as sum_qty,
       dec_sum(l_extendedprice, 2) as sum_base_price,
       dec_sum(l_extendedprice * (100 - l_discount), 4) as sum_disc_price,
       dec_sum(l_extendedprice * (100 - l_discount) * (100 + l_tax), 6) as sum_charge,
       round(avg(l_quantity), 2) as avg_qty, round(avg(l_extendedprice) / 100, 2) as avg_price,
       round(avg(l_discount) / 100, 4) as avg_disc, count(*) as count_order
from t_scaled
where l_shipdate <= '1998-09-02'
group by l_returnflag, l_linestatus
order by l_returnflag, l_linestatus
