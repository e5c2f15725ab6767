;; Leiningen: everything is resolved through the group `public` of mvnrepod. For ~/.lein/profiles.clj; docs/GUIDE.md says more.
{:user {:mirrors {#".*" {:name "public" :url "http://127.0.0.1:8080/repository/public"}}}}
