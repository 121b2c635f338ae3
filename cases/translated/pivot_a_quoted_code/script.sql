SET SCALE 6 ROUNDING HALF_UP;
INPUT "x" ("k" TEXT, "c" TEXT CODES ('1st', '2nd', 'and'), "v" INTEGER) KEY ("k", "c");
CREATE TABLE "R$1" AS
  SELECT "a"."k" AS "k", MAX(CASE WHEN "a"."c" = '1st' THEN "a"."v" ELSE NULL END) AS "1st",
    MAX(CASE WHEN "a"."c" = '2nd' THEN "a"."v" ELSE NULL END) AS "2nd",
    MAX(CASE WHEN "a"."c" = 'and' THEN "a"."v" ELSE NULL END) AS "and"
  FROM "x" AS "a"
  GROUP BY "a"."k";
CREATE TABLE "R" AS
  SELECT "a"."k" AS "k", "a"."1st" AS "1st", "a"."2nd" AS "2nd", "a"."and" AS "and"
  FROM "R$1" AS "a"
  WHERE "a"."2nd" > 1;
EXPORT "R" ORDER BY "k";
